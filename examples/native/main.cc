// The same in C++, with an instance that is wiped and freed at the end of its block. Licence: public domain (CC0).
#include "hmac.h"
#include <array>
#include <cstdio>
#include <memory>
#include <string>

namespace {
constexpr uint32_t key_at = 131072, text_at = key_at + 64, tag_at = key_at + 512;
struct Free { void operator()(hmac *m) const { hmac_free(m); } };
}

int main()
{
    const std::string key = "Jefe", text = "what do ya want for nothing?";
    const auto key_size = static_cast<uint32_t>(key.size()), text_size = static_cast<uint32_t>(text.size());
    std::array<uint8_t, 32> tag;
    const std::unique_ptr<hmac, Free> m(hmac_new());
    if (!m || !hmac_write(m.get(), HMAC_MEMORY_HMAC, key_at, key.data(), key_size)
           || !hmac_write(m.get(), HMAC_MEMORY_HMAC, text_at, text.data(), text_size)
           || hmac_hmac(m.get(), tag_at, key_at, key_size, text_at, text_size, text_size) != HMAC_OK
           || !hmac_read(m.get(), HMAC_MEMORY_HMAC, tag_at, tag.data(), tag.size())) return 1;
    for (const auto byte : tag) std::printf("%02x", byte);
    std::puts("");
}
