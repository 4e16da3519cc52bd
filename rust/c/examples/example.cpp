// The cache from C++: owned by an object, shared by threads.
#include "ravulemis.h"
#include <cstdio>
#include <memory>
#include <optional>
#include <stdexcept>
#include <string>
#include <thread>
#include <vector>

class Cache {
  struct Destroy {
    void operator()(ravulemis_cache *cache) const { ravulemis_destroy(cache); }
  };
  std::unique_ptr<ravulemis_cache, Destroy> cache;

  static int32_t checked(int32_t code) {
    if (code < 0) throw std::runtime_error(ravulemis_message(code));
    return code;
  }

public:
  explicit Cache(uint64_t max_capacity) {
    ravulemis_settings settings = {};
    settings.is_bounded = 1;
    settings.max_capacity = max_capacity;
    ravulemis_cache *made = nullptr;
    checked(ravulemis_create(&settings, &made));
    cache.reset(made);
  }

  void insert(const std::string &key, const std::string &value) {
    checked(ravulemis_insert(cache.get(), key.data(), key.size(), value.data(), value.size()));
  }

  std::optional<std::string> get(const std::string &key) {
    std::string value(64, '\0');
    for (;;) {
      std::size_t length = 0;
      int32_t code = checked(ravulemis_get(cache.get(), key.data(), key.size(), value.data(), value.size(), &length));
      if (code == RAVULEMIS_NOT_FOUND) return std::nullopt;
      value.resize(length);
      if (code == RAVULEMIS_OK) return value;
    }
  }
};

int main() {
  Cache cache(100000);
  std::vector<std::thread> threads;
  for (int thread = 0; thread < 4; thread++)
    threads.emplace_back([&cache, thread] {
      for (int i = 0; i < 1000; i++) {
        std::string key = std::to_string(thread * 1000 + i);
        cache.insert(key, std::string(100, 'v') + key);
      }
    });
  for (std::thread &thread : threads) thread.join();
  for (int i = 0; i < 4000; i++)
    if (cache.get(std::to_string(i)) != std::string(100, 'v') + std::to_string(i)) return 1;
  if (cache.get("none")) return 2;
  try {
    cache.insert("", "value");
    return 3;
  } catch (const std::runtime_error &error) {
    std::printf("C++: done, and refused is %s\n", error.what());
  }
  return 0;
}
