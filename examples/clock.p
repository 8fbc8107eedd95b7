/* sleeps by the minute until seven, then says how long it took */
#include "include/time"

main() {
  new hour, minute, second;
  gettime(hour, minute, second);
  while (hour < 7) {
    sleep 60000;
    gettime(hour, minute, second);
  }
  new begin = tickcount();
  assert hour == 7 && minute == 0;
  return tickcount() - begin;
}
