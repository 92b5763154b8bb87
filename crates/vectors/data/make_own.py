# Writes own.txt: an independent writer of the signatures that a signer of this project makes (RFC 8554, LM-OTS type 3,
# the randomizer SHA-256 of seed, 0x43 and q), in about a minute. Bouncy Castle 1.72 accepts each (`Outside.java judge own.txt`).
import hashlib
H=lambda b: hashlib.sha256(b).digest()
u8=lambda n:n.to_bytes(1,'big'); u16=lambda n:n.to_bytes(2,'big'); u32=lambda n:n.to_bytes(4,'big')
P=67;W=4;LS=4
def digits(Q):
    s=0; d=[]
    for b in Q: d+= [b>>4,b&15]
    c=sum(15-x for x in d)<<LS
    full=Q+u16(c)
    d=[]
    for b in full: d+=[b>>4,b&15]
    return d[:P]
class Signer:
    def __init__(s,name,h):
        s.seed=H(('seed '+name).encode()); s.I=H(('id '+name).encode())[:16]; s.h=h; s.q=0
        n=2**h; T={}
        for q in range(n):
            K=H(s.I+u32(q)+b'\x80\x80'+b''.join(s.chain(q,i,s.x(q,i),0,15) for i in range(P)))
            T[n+q]=H(s.I+u32(n+q)+b'\x82\x82'+K)
        for r in range(n-1,0,-1): T[r]=H(s.I+u32(r)+b'\x83\x83'+T[2*r]+T[2*r+1])
        s.T=T
    def x(s,q,i): return H(s.I+u32(q)+u16(i)+b'\xff'+s.seed)
    def chain(s,q,i,t,a,b):
        for j in range(a,b): t=H(s.I+u32(q)+u16(i)+u8(j)+t)
        return t
    def public(s): return u32(4+s.h//5)+u32(3)+s.I+s.T[1]
    def sign(s,m):
        q=s.q; s.q+=1
        C=H(s.seed+b'\x43'+u32(q))
        Q=H(s.I+u32(q)+b'\x81\x81'+C+m)
        d=digits(Q)
        y=b''.join(s.chain(q,i,s.x(q,i),0,d[i]) for i in range(P))
        path=b''; r=2**s.h+q
        while r>1: path+=s.T[r^1]; r//=2
        return u32(q)+u32(3)+C+y+u32(4+s.h//5)+path
M33=b'\x05'+H(b'a state'); M34=b'\x06'+H(b'a challenge')+b'\x01'
for name,h in (('h5w4',5),('h10w4',10),('h15w4',15)):
    s=Signer(name,h)
    for m in (M33,M34,b''):
        print(name,s.public().hex(),m.hex() or '-',s.sign(m).hex(),'true')
