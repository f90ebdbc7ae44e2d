/* What the library says of itself. */
#include "paxidore.h"

const char *paxidore_version(void) { return PAXIDORE_VERSION_STRING; }

/* of a library of one build, as tools/build-library names it; choose.c says it of two */
#ifdef ONE_BUILD
const char *paxidore_cpu(void) { return ONE_BUILD; }
#endif

const char *paxidore_strerror(int32_t answer) {
    switch (answer) {
    case PAXIDORE_OK: return "shown, or done";
    case PAXIDORE_NOT_SHOWN: return "the proof does not lead from the leaves to the root";
    case PAXIDORE_E_MEMORY: return "a request for memory was refused";
    case PAXIDORE_E_TRUNCATED: return "the bytes end early";
    case PAXIDORE_E_INVALID: return "the bytes are not what was asked for";
    case PAXIDORE_E_HEIGHT: return "the proof is for a tree of another size";
    case PAXIDORE_E_SIZE: return "no tree or log has this size";
    case PAXIDORE_E_LENGTHS: return "the lengths of the leaves do not sum to that of their bytes";
    case PAXIDORE_E_COUNT: return "there are not as many leaves, or elements, as asked for";
    case PAXIDORE_E_INDEX: return "there is no index, or no leaf at one";
    case PAXIDORE_E_ROOM: return "the buffer is too short";
    case PAXIDORE_E_MORE: return "pieces of the file are to be read first";
    case PAXIDORE_E_NO_LOG: return "the file is no log";
    case PAXIDORE_E_SHORT: return "the file of the log ends early";
    case PAXIDORE_E_HEAD: return "the head of the log's file is damaged";
    case PAXIDORE_E_DAMAGED: return "the file of the log, or the memory of the map, is damaged";
    case PAXIDORE_E_HIDDEN: return "the tree of the map hides what is needed";
    case PAXIDORE_E_POLICY: return "the text is no policy";
    case PAXIDORE_E_SIGNATURE: return "a signature by a key does not hold";
    case PAXIDORE_E_UNSIGNED: return "the checkpoint lacks signatures that are asked for";
    case PAXIDORE_E_ORIGIN: return "the checkpoint is of another origin";
    default: return "unknown answer";
    }
}
