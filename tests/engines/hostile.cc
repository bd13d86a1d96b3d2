// As hostile.c, by the other file.
#include <csignal>
#include <iostream>
#include <sstream>
#include "lines.hpp"

static std::string key_of(const std::string &text) {
  std::string key;
  for (std::size_t at = 0; at + 1 < text.size(); at += 2) key += static_cast<char>(std::stoi(text.substr(at, 2), nullptr, 16));
  return key;
}

int main() {
  std::signal(SIGXFSZ, SIG_IGN);
  lines::Log log(1);
  std::string text;
  for (std::uint64_t id = 1; std::getline(std::cin, text); id++) {
    try {
      lines::Ops ops;
      std::istringstream keys(text + ",");
      for (std::string key; std::getline(keys, key, ',');) ops.read(key_of(key), std::nullopt).write(key_of(key), UINT64_MAX - id);
      log.committed(id, 2 * id, 2 * id + 1, ops);
    } catch (const std::exception &) {
      std::cerr << id << "\n";
    }
  }
}
