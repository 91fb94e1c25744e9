pub struct PacketHandle;
