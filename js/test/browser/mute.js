const { postMessage } = BroadcastChannel.prototype;
let isMute = false;
new BroadcastChannel('mute').onmessage = () => { isMute = true; };
BroadcastChannel.prototype.postMessage = function (...words) {
  if (!isMute) postMessage.apply(this, words);
};
