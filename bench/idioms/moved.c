struct Ball { int x, y, dx, dy; };
Ball[400] balls;
void step(Ball* b)
{
    b->x += b->dx;
    b->y += b->dy;
}
void main()
{
    for (int i = 0; i < 400; i++) { balls[i].x = i; balls[i].y = i; balls[i].dx = 1; balls[i].dy = 2; }
    for (int i = 0; i < 400; i++) step(&balls[i]);
    port_out(GPU_ClearColor, balls[399].x + balls[399].y);
}
