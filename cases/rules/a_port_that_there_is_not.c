void main() {
    port_out(RNG_Seed, 1); // error 45
}
