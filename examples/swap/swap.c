int nf_process(uint16_t port, uint64_t now) {
    if (port == 0)
        return 1;
    return 0;
}
