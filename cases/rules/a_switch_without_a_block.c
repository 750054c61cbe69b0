void main() {
    switch (1) ; // error 30
}
