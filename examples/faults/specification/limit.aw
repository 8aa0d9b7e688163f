con wide 9
