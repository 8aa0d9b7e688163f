type num
