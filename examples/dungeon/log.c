// The last messages, the newest at the end. A text in which `%` stands has the number of the message in its place.
#define log_lines 4

struct Message { int* text; int number; };

Message[log_lines] messages;
int message_count;

void say_number(int* text, int number)
{
    Message m = { text, number };
    if (message_count == log_lines)
    {
        for (int n = 1; n < log_lines; n++) messages[n - 1] = messages[n];
        message_count--;
    }
    messages[message_count] = m;
    message_count++;
}

void say(int* text)
{
    say_number(text, 0);
}

void draw_message(Message m, int y, int color)
{
    int x = 12;
    int[2] letter = { 0, 0 };
    for (int n = 0; m.text[n] != 0; n++)
    {
        if (m.text[n] == '%')
        {
            draw_number(m.number, x, y, color);
            x += number_length(m.number) * character_width;
        }
        else
        {
            letter[0] = m.text[n];
            draw_text(letter, x, y, color);
            x += character_width;
        }
    }
}

void draw_log()
{
    for (int n = 0; n < message_count; n++)
    {
        int color = 0xFF909090;
        if (n == message_count - 1) color = color_white;
        draw_message(messages[n], 316 + 10 * n, color);
    }
}
