void main() {
    goto end; // error 32
}
