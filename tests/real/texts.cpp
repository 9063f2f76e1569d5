// Containers, closures and a cast that asks for the dynamic type.
#include <cstdio>
#include <functional>
#include <map>
#include <memory>
#include <string>
#include <vector>

struct Named {
  virtual ~Named() {}
  virtual std::string name() const = 0;
};
struct Plain : Named {
  std::string name() const override { return "plain"; }
};
struct Joined : virtual Plain {
  std::string name() const override { return "joined " + Plain::name(); }
};

int main() {
  std::map<std::string, std::vector<int>> places;
  const char *words[] = {"one", "two", "one", "three", "two", "one"};
  for (int i = 0; i < 6; i++) places[words[i]].push_back(i);
  for (const auto &p : places) std::printf("%s %zu %d\n", p.first.c_str(), p.second.size(), p.second.back());

  std::vector<std::unique_ptr<Named>> all;
  all.emplace_back(new Plain);
  all.emplace_back(new Joined);
  std::function<size_t(size_t)> times = [&](size_t n) { return n * all.size(); };
  auto *joined = dynamic_cast<Joined *>(all[1].get());
  std::printf("%zu %s %d\n", times(21), joined ? joined->name().c_str() : "none", dynamic_cast<Joined *>(all[0].get()) == nullptr);
  return 0;
}
