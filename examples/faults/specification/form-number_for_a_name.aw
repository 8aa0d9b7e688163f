role 7
