StorageManager.prototype.getDirectory = async () => { throw new DOMException('not in a private window', 'SecurityError'); };
