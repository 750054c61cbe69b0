void main() {
    port_out(SPU_ChannelState, 1); // error 45
}
