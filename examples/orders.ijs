NB. Orders: for each one its region, and its amount.
region =: 1 2 1 3 2 1
amount =: 10 20 30 40 50 60
sum =: +/
sum amount
(sum % #) amount          NB. the mean
(>./ - <./) amount        NB. how far they lie apart
~. region
region sum/. amount       NB. the sum of each region
region (#/.) amount       NB. and how many orders it has
sum\ amount               NB. running totals
2 (-~/)\ amount           NB. by how much each is more than the one before
region </. amount         NB. the amounts of each region
amount +/ 1 2             NB. each amount with one and with two added
<: &. (+&5) amount
