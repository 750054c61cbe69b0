void main() { }

/*/ // error 12
