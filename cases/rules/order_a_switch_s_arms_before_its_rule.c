void main() {
    switch (NULL) {
        case NULL: // error 48
    }
}
