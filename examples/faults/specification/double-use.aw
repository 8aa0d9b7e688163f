role clinic
role lab
sort test lab 0 0
use clinic test
use clinic test
