void main() {
    switch (x) { } // error 40
}
