NB. degrees Celsius and Fahrenheit, where both are whole
celsius =: _40 0 25 100
fahrenheit =: 32 + (9 * celsius) % 5
fahrenheit
celsius = (5 * fahrenheit - 32) % 9
NB. 21 degrees Celsius are 69.8: that is no whole number, so it is refused and never rounded
32 + (9 * 21) % 5
