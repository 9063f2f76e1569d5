// A module that is called again and again: its object is made by _initialize.
struct Counter {
  int at;
  explicit Counter(int first) : at(first) {}
};

static Counter counter(40);

extern "C" __attribute__((export_name("next"))) int next() { return ++counter.at; }
