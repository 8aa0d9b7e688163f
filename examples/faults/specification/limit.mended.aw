con wide 8
