void main() {
    port_out(SPU_ChannelVolume, 1); // error 45
}
