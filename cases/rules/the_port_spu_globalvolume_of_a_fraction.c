void main() {
    port_out(SPU_GlobalVolume, 1); // error 45
}
