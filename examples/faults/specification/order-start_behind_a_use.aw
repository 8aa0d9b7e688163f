role clinic
role lab
sort visit clinic 0 0
sort test lab 0 0
offer test
use clinic test
start visit
