int[11][20] map;
void main()
{
    for (int y = 0; y < 11; y++)
        for (int x = 0; x < 20; x++) map[y][x] = (x ^ y) & 3;
    for (int y = 0; y < 11; y++)
        for (int x = 0; x < 20; x++)
        {
            port_out(GPU_SelectedRegion, map[y][x]);
            port_out(GPU_DrawingPointX, x * 32);
            port_out(GPU_DrawingPointY, y * 32);
            port_out(GPU_Command, 0x11);
        }
}
