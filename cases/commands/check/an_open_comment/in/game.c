void main() { }
/* no end
