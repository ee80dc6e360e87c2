NB. which of these years are leap years: 1 for a leap year
year =: 1900 1996 2000 2023 2024
fourth =: 0 = 4 | year
century =: 0 = 100 | year
fourth * -. century * -. 0 = 400 | year
