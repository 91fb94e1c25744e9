pub struct NetDevice;
