void main() {
    switch (NULL) { } // error 42
}
