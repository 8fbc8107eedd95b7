main() { p("
