pub enum Block {}

pub enum BlockCacheKey {}
