from paxidore import poseidon

log = poseidon.Log()
log.append([11, 12, 13])
path = log.inclusion(1)
print(poseidon.verify(log.root(), 3, 1, 12, path))
