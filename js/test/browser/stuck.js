const { write } = FileSystemSyncAccessHandle.prototype;
let isStuck = false;
new BroadcastChannel('stuck').onmessage = () => { isStuck = true; };
FileSystemSyncAccessHandle.prototype.write = function (bytes, at) {
  if (isStuck && bytes.length !== 96) {
    const asked = new XMLHttpRequest(); // a question for news that nobody has waits
    asked.open('GET', '/v1/histories/test/news?after=4000000000&wait=60', false);
    asked.send();
  }
  return write.call(this, bytes, at);
};
