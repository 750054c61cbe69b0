void main() {
    port_out(RNG_Seed, 1);
}
