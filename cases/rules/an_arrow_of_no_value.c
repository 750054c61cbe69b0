void main() {
    halt()->a; // error 42
}
