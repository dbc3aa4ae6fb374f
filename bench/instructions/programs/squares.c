/* An interpreter of Brainfuck, which counts in squares. */

static const char program[] =
	"++++[>+++++<-]>[<+++++>-]+<+[>[>+>+<<-]++>>[<<+>>-]>>>[-]++>[-]+>>>+[[-]++++++>>>]<<<[[<++++++++<++>>-]+<.<[>----<-]<]"
	"<<[>>>>>[>>>[-]+++++++++<[>-<-]+++++++++>[-[<->-]+[<<<]]<[>+<-]>]<<-]<<-]";
static unsigned char tape[300];
static short other[sizeof program];

static void match(void)
{
	short open[50];
	int depth = 0;
	for (int i = 0; program[i]; i++)
		if (program[i] == '[')
			open[depth++] = i;
		else if (program[i] == ']') {
			other[i] = open[--depth];
			other[open[depth]] = i;
		}
}

int work(void)
{
	unsigned sum = 0, at = 0;
	match();
	for (int i = 0; program[i]; i++)
		switch (program[i]) {
		case '>': at++; break;
		case '<': at--; break;
		case '+': tape[at]++; break;
		case '-': tape[at]--; break;
		case '.': sum = sum * 31 + tape[at]; break;
		case '[': if (!tape[at]) i = other[i]; break;
		case ']': if (tape[at]) i = other[i]; break;
		}
	return sum;
}
