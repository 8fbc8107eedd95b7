/* a machine with a stack, whose program sums the numbers below 100,000: a switch in a loop */
enum { PUSH, ADD, LESS, GET, SET, JUMP, END }

new const code[] = {
  GET, 1, GET, 0, ADD, SET, 1,
  GET, 0, PUSH, 1, ADD, SET, 0,
  GET, 0, PUSH, 100000, LESS, JUMP, 0,
  END
};
new stack[16];
new top;
new places[2];

run() {
  new at = 0;
  for (;;) {
    switch (code[at++]) {
      case PUSH: stack[top++] = code[at++];
      case ADD: { top--; stack[top - 1] += stack[top]; }
      case LESS: { top--; stack[top - 1] = stack[top - 1] < stack[top]; }
      case GET: stack[top++] = places[code[at++]];
      case SET: places[code[at++]] = stack[--top];
      case JUMP: {
        new to = code[at++];
        if (stack[--top]) at = to;
      }
      case END: return places[1];
    }
  }
  return 0;
}

main() return run();
