NB. a price list, and what is left of a budget
price =: 120 75 260 40
count =: 2 4 1 10
cost =: price * count
cost
budget =: 1000
left =: budget - cost
left
left < 500
NB. a verb under a name is looked up each time it is run
compare =: <.
600 compare cost
compare =: >.
600 compare cost
