void main() {
    port_out(SPU_ChannelSpeed, 1); // error 45
}
