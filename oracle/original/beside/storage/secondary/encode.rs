// Nothing of this file is needed.
