NB. sales of two shops in three months, a row for each shop
sales =: 2 3 $ 5 7 2 4 0 9
sales
NB. a row for each month
|: sales
NB. the second shop, and the last month of each
1 { sales
{: |: sales
NB. another shop, and the months in which it sold anything
all =: sales , 6 0 3
all
I. 0 < {: all
NB. the first two months of each shop
3 2 {. all
