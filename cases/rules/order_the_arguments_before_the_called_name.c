void main() {
    f(
        &1 // error 43
    );
}
