void main() {
    switch (halt()) { } // error 42
}
