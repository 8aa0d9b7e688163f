offer test
