/* asks for a name and a number, and greets */
#include "include/console"
#include "include/strings"

main() {
  new name[32], greeting[32], digits[12];
  print("name?");
  getstring(name);
  new times = getvalue();
  strcopy(greeting, "hello ");
  strcat(greeting, name);
  print(greeting);
  valstr(digits, times * strlen(name));
  print(digits);
  printf("%d times, key %d", times, getchar());
  return strcmp(name, "Tom") == 0 && strval(digits) == 21;
}
