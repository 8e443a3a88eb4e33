/* The compiler looks at the clock, as all that tsp-run starts. */
const char built[] = __DATE__ " " __TIME__;
