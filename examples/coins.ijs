NB. amounts in cents as the fewest coins: quarters, dimes, nickels and cents
amount =: 187 50 99
rest =: 25 | amount
quarters =: (amount - rest) % 25
quarters
dimes =: (rest - 10 | rest) % 10
dimes
rest =: 10 | rest
nickels =: (rest - 5 | rest) % 5
nickels
cents =: 5 | rest
cents
NB. they make the amounts again
amount = (25 * quarters) + (10 * dimes) + (5 * nickels) + cents
