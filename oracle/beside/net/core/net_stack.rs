pub struct NetStack;
