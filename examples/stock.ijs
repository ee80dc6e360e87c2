NB. what can be shipped of each order, and what is owed
stock =: 40 0 12 7
order =: 10 5 20 7
shipped =: stock <. order
shipped
order - shipped
NB. 1 where an order is shipped whole
order = shipped
NB. what is left, and 1 where fewer than five are
stock =: stock - shipped
stock
stock < 5
