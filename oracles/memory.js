// Has node run items over one memory and calls through a table, and prints what they give: node
// oracles/memory.js
function leb(n){const o=[];n=BigInt(n);do{let b=Number(n&127n);n>>=7n;if(n)b|=128;o.push(b)}while(n);return o}
const CODES={I32Load:[0x28,'i',4],I64Load:[0x29,'l',8],I32Load8S:[0x2c,'i',1],I32Load8U:[0x2d,'i',1],
  I32Load16S:[0x2e,'i',2],I32Load16U:[0x2f,'i',2],I64Load8S:[0x30,'l',1],I64Load8U:[0x31,'l',1],
  I64Load16S:[0x32,'l',2],I64Load16U:[0x33,'l',2],I64Load32S:[0x34,'l',4],I64Load32U:[0x35,'l',4],
  I32Store:[0x36,'i',4],I64Store:[0x37,'l',8],I32Store8:[0x3a,'i',1],I32Store16:[0x3b,'i',2],
  I64Store8:[0x3c,'l',1],I64Store16:[0x3d,'l',2],I64Store32:[0x3e,'l',4]};
const t=x=>x=='i'?0x7f:0x7e;
function sec(id,b){return [id,...leb(b.length),...b]}
function mod(store,load,offset,pages,reserve){
 const s=CODES[store],l=CODES[load];
 const types=[2,0x60,2,0x7f,t(s[1]),1,t(l[1]),0x60,1,0x7f,2,0x7f,0x7f];
 const f0=[0,0x20,0,0x20,1,s[0],0,...leb(offset),0x20,0,l[0],0,...leb(offset),0x0b];
 const f1=[0,0x20,0,0x40,0,0x3f,0,0x0b];
 const code=[2,...leb(f0.length),...f0,...leb(f1.length),...f1];
 return Uint8Array.from([0,0x61,0x73,0x6d,1,0,0,0,...sec(1,types),...sec(3,[2,0,1]),
   ...sec(5,[1,1,...leb(pages),...leb(reserve)]),...sec(7,[3,1,97,0,0,1,103,0,1,1,109,2,0]),...sec(10,code)]);
}
function inst(...a){return new WebAssembly.Instance(new WebAssembly.Module(mod(...a))).exports}
function u(v){return typeof v=='bigint'?BigInt.asUintN(64,v):BigInt(v>>>0)}
function arg(kind,v){return kind=='l'?BigInt.asIntN(64,BigInt(v)):Number(BigInt.asIntN(32,BigInt(v)))}
function access(store,load,offset,pages,address,value,patches=[]){
 const e=inst(store,load,offset,pages,pages);
 const mem=new Uint8Array(e.m.buffer);
 for(const [o,b] of patches) mem.set(b,o);
 let r; try{r='Returned '+u(e.a(Number(BigInt.asIntN(32,BigInt(address))),
   arg(CODES[store][1],value)))}catch(x){r='trap '+x.message}
 const from=Math.max(0,Math.min(Number(address)+offset,mem.length-10)-1);
 return r+'  bytes from '+from+': ['+Array.from(mem.slice(from,from+10)).join(', ')+']';
}
const V=0x8182838485868788n, W=0xF1F2F3F4n;
for(const [s,l,o,v] of [
 ['I32Store','I32Load',0,W],['I32Store','I32Load8S',1,W],['I32Store','I32Load8U',2,W],
 ['I32Store','I32Load16S',3,W],['I32Store','I32Load16U',4,W],
 ['I64Store','I64Load',5,V],['I64Store','I64Load8S',6,V],['I64Store','I64Load8U',7,V],
 ['I64Store','I64Load16S',8,V],['I64Store','I64Load16U',9,V],['I64Store','I64Load32S',10,V],
 ['I64Store','I64Load32U',11,V],
 ['I32Store8','I64Load',12,W],['I32Store16','I64Load',13,W],['I64Store8','I64Load',14,V],
 ['I64Store16','I64Load',15,V],['I64Store32','I64Load',16,V],
]) console.log(s,l,o,v.toString(), access(s,l,o,1,32,v));
console.log('end', access('I64Store','I64Load',8,1,65520,V), '|', access('I64Store','I64Load',8,1,65521,V));
console.log('end8', access('I32Store8','I32Load8U',0,1,65535,W), '|',
  access('I32Store8','I32Load8U',0,1,65536,W));
console.log('wrap', access('I32Store','I32Load',8,1,4294967288,W),
  access('I32Store','I32Load',4294967295,1,1,W), access('I32Store','I32Load',4294967295,1,4294967295,W));
console.log('load past the store', access('I32Store8','I64Load',0,1,65530,W));
console.log('patches', access('I32Store8','I32Load',4,1,0,7,[[4,[1,2,3,4]],[6,[9,9]]]));
for(const [p,r,d] of [[1,3,2],[1,3,3],[1,3,0],[1,3,4294967295],[0,1,1],[0,0,0],[0,0,1],[1,3,4294967294],
  [2,2,1]]){const e=inst('I32Store','I32Load',0,p,r);
  console.log('grow',p,r,d,e.g(d|0).map(x=>u(x)).join(' '), e.m.buffer.byteLength)}
// calls through a table
const table=Uint8Array.from([0,0x61,0x73,0x6d,1,0,0,0,
  ...sec(1,[4,0x60,2,0x7f,0x7f,1,0x7f,0x60,1,0x7f,1,0x7f,0x60,1,0x7f,1,0x7f,0x60,0,1,0x7f]),
  ...sec(3,[4,0,1,2,3]),...sec(4,[1,0x70,0,4]),...sec(7,[1,1,102,0,0]),
  ...sec(9,[2,0,0x41,0,0x0b,2,1,2,0,0x41,3,0x0b,1,3]),
  ...sec(10,[4,9,0,0x20,1,0x20,0,0x11,1,0,0x0b,4,0,0x20,0,0x0b,4,0,0x41,7,0x0b,4,0,0x41,9,0x0b])]);
const f=new WebAssembly.Instance(new WebAssembly.Module(table)).exports.f;
for(const i of [0,1,2,3,4,-1]){let r;try{r=f(i,10)}catch(x){r=x.message} console.log('slot',i,r)}
