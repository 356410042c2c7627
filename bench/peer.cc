// SentencePiece's own encode and decode behind functions that a program can load.
#include <sentencepiece_processor.h>

#include <string>
#include <vector>

namespace {
struct Peer {
    sentencepiece::SentencePieceProcessor processor;
    std::vector<int> ids;
    std::string text;
};
}

extern "C" {
void *peer_load(const char *path) {
    Peer *peer = new Peer;
    return peer->processor.Load(path).ok() ? peer : nullptr;
}

// The ids stay with the peer until the next call.
size_t peer_encode(Peer *peer, const char *text, size_t length, const int **ids) {
    peer->processor.Encode({text, length}, &peer->ids);
    *ids = peer->ids.data();
    return peer->ids.size();
}

// So does the text.
size_t peer_decode(Peer *peer, const int *ids, size_t count, const char **text) {
    peer->ids.assign(ids, ids + count);
    peer->processor.Decode(peer->ids, &peer->text);
    *text = peer->text.data();
    return peer->text.size();
}
}
