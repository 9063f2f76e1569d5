// Static objects, strings, containers and virtual functions.
#include <cstdio>
#include <map>
#include <string>
#include <vector>

struct Named {
  std::string name;
  explicit Named(const char *text) : name(text) {}
  virtual ~Named() { std::printf("end of %s\n", name.c_str()); }
  virtual std::size_t weight() const { return name.size(); }
};

struct Heavy : Named {
  using Named::Named;
  std::size_t weight() const override { return 10 * name.size(); }
};

static Heavy first("first");
static std::map<std::string, int> counts = {{"b", 2}, {"a", 1}};

int main() {
  std::vector<const Named *> all = {&first};
  Named second("second");
  all.push_back(&second);
  for (const Named *it : all) std::printf("%s %zu\n", it->name.c_str(), it->weight());
  for (const auto &pair : counts) std::printf("%s=%d\n", pair.first.c_str(), pair.second);
  return 0;
}
